"""The paths of packets through a net, from link to link, over the hosts that forwarded the packets."""
