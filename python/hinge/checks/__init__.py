"""The faults in configurations, packet files and histories, as judged by the program, with advice."""
