"""forwarder: hands connections to the first of several servers that is up, as a balancer does, for the tests of the recorder."""
import contextlib
import socket
import threading

SECONDS = 2  # that a server is given to take a connection


class Forwarder(threading.Thread):
    """Listens at `port`, and hands each connection to the server that had the last one, as long as that is up; else to the first that
    is, and ends all connections to the other. A server is up where it can be connected to and `is_up(place)` says so."""

    def __init__(self, ports, is_up):
        super().__init__(daemon=True)
        self.ports, self.is_up, self.place = ports, is_up, 0
        self.turn, self.open = threading.Lock(), set()  # the streams of the connections that there are
        self.listener = socket.create_server(("127.0.0.1", 0), backlog=100)
        self.port = self.listener.getsockname()[1]
        self.start()

    def run(self):
        while True:
            client, _ = self.listener.accept()
            threading.Thread(target=self.forward, args=(client,), daemon=True).start()

    def connect(self):
        """A connection to a server, if one is up."""
        with self.turn:
            for place in (self.place, *(it for it in range(len(self.ports)) if it != self.place)):
                with contextlib.suppress(OSError):
                    if self.is_up(place):
                        stream = socket.create_connection(("127.0.0.1", self.ports[place]), SECONDS)
                        stream.settimeout(None)
                        if place != self.place:
                            self.leave(place)
                        self.open.add(stream)
                        return stream
        return None

    def switch(self, place):
        """Turns to that server, for as long as it is up."""
        with self.turn:
            self.leave(place)

    def leave(self, place):
        """Turns to another server."""
        self.place = place
        for stream in self.open:
            end(stream)
        self.open.clear()

    def forward(self, client):
        """Hands all that comes from either end to the other, until one has ended."""
        server = self.connect()
        if server is None:
            client.close()
            return
        other = threading.Thread(target=pour, args=(server, client), daemon=True)
        other.start()
        pour(client, server)
        other.join()
        with self.turn:
            self.open.discard(server)
        client.close()
        server.close()


def end(stream):
    """Ends both directions of a connection."""
    with contextlib.suppress(OSError):
        stream.shutdown(socket.SHUT_RDWR)


def pour(source, to):
    """Hands on what comes from the one end; once that has ended, or the other, ends both."""
    with contextlib.suppress(OSError):
        for stream in (source, to):
            stream.setsockopt(socket.IPPROTO_TCP, socket.TCP_NODELAY, 1)
        while piece := source.recv(65_536):
            to.sendall(piece)
    end(source)
    end(to)
