"""merged: protocols by which full merging is told from plain, for the tests of the library."""

# Of a's choice c is told by labels of its own. Plain merging refuses that: c, role 2, doesn't do the same in choice 0.
PROTOCOL = "roles a b c ; rec X . a -> b { go : a -> c { go : c -> a : int . X } , stop : a -> c { stop : end } }"

# lines that play it to its end, once a took back a choice of which c had been told; each is an entry, and has this answer
PLAY = (("a choose b stop", "done 1"), ("a choose c stop", "done 2"), ("c pick a", "done 3 stop"),
        ("a rollback 1", "undone 3 2 1"), ("a choose b go", "done 4"), ("a choose c go", "done 5"), ("c pick a", "done 6 go"),
        ("c send a 5", "done 7"), ("a recv c x", "done 8 5"), ("b pick a", "done 9 go"), ("a choose b stop", "done 10"),
        ("b pick a", "done 11 stop"), ("a choose c stop", "done 12"), ("c pick a", "done 13 stop"))
LINES, ANSWERS = zip(*PLAY)

# Full merging refuses this too: before c knows the branch of choice 0, it would have to receive, or to have ended.
UNTOLD = "roles a b c ; a -> b { l : a -> c : int . end , r : end }"
