/* Messages while packets pass, from a socket that keeps them whole. The answer has the moment, behind it the reason of a refusal, and on a
   second line the configuration line that the message's pipe then has:

     line LINE      follows a line of cuts.h or of the configuration at once
     at NS LINE     follows a line NS later
     outage NS cut PIPE N
                    begins a cut at once and ends it NS later; a third line has the pipe's configuration line behind the cut
     acted HOST     asks when the host's next act (acts.h) was done, and whether it met nothing; each act is answered once
     main           begins the main command now, and reads the lines of the plan that waited for it
     moment         asks for the moment alone */
#pragma once

struct host;

/* Obeys and answers the messages that have come. */
void take_control(struct host *host);
