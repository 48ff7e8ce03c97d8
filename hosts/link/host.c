#include "host.h"

void make_parts(struct host *host, int ways) {
    host->control = -1;
    host->transcript = new_transcript(host->page);
    host->links = open_links(host->transcript);
    host->held = new_held(host->page);
    host->losses = new_losses(ways);
    host->passes = new_passes(ways);
    host->late = new_late_remarks(ways);
    host->pacing = new_pacing(host->links, ways);
    host->cuts = new_cuts(host->links, host->pacing, host->transcript, ways);
    host->acts = new_acts();
    host->switches = new_switches(ways);
    host->strangers = new_strangers(host->transcript);
    host->changes = new_changes();
}
