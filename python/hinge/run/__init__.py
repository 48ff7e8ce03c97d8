"""`hinge run` and `hinge udp`: programs behind emulated links, in real time. The host program hinge-link, written in C, carries the
packets."""
