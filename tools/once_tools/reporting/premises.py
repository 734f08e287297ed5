"""What an answer presumes and means, in the sentences of docs/GUIDE.md and docs/PROVED.md; a test compares them."""
from __future__ import annotations

# Each with what happens if it does not hold.
PREMISES = (
    ("The declared traffic is all that you ask about, and takes the declared paths",
     "packets outside the classes, or on other paths, may be counted twice or not at all"),
    ("No packet is fragmented between two meters, or before the first", "each fragment is a packet to later meters, with a header of its own"),
    ("No packet's addresses or ports change on its path (NAT, tunnels)",
     "the packet after the change is another one, and may be counted again under another key"),
    ("No packet is dropped between the first crossing of its path and the meter that counts it (TTL, queues, packet filters)",
     "it is on the path and isn't counted"),
    ("The meters see each packet that crosses their interfaces, and no other",
     "sampling counts a part; a promiscuous interface counts packets of other hosts; a flooding switch counts each copy"),
    ("Caches are exported before a meter ends, and totals are read after that",
     "what a cache held is lost, all of it if the meter is killed"),
    ("Each message reaches the collector, after its templates",
     "UDP loses messages, and a collector drops records whose template it hasn't seen, usually without a message"),
    ("Counters don't wrap", "a counter of 4 octets starts again from 0 at 4,294,967,296"),
    ("The collector adds up all records that it receives", "one that removes duplicates, samples or filters has other totals"),
)
ABOUT = ("A certificate is about documents. It is true of your network if they describe it and if these things hold, which no document "
         "can say.")
MODULO = "the totals are the plain sums modulo 2 to the 64"
REFUTED = ("A refutation presumes less: the documents allow its run. It may follow a path that no packet takes, though, if more paths were "
           "declared than there are.")
YES = ("If the checker says yes to a network, a traffic declaration and a certificate, then for every list of packets of the declared "
       "classes and every complete run over them, whatever the expiry moments, the destinations chosen and the order of steps, the "
       "collector's packet and octet totals for each report key are the plain sums over the packets.")
UNTRUSTED = "The maker of the certificate isn't trusted: a certificate is any octets at all."
CONFIRMED = "Prints `refuted` (status 0), then after the line `run` what the collector counts in that run, and after the line `plain` what it should"
