/* What leaves the links: packets that the carrier sends on, frames that switches give to other links, and second passes through a link. */
#pragma once
struct host;

/* Sends on the packets that are due. */
void send_due_packets(struct host *host);

/* Counts at the end the packets that are still under way, and the packets that deletes of pipes and queues have discarded. */
void count_remaining(struct host *host);
