"""Where the lab sees losses: texts of the kernel and of programs."""
from __future__ import annotations

from lab.losses import (Counters, capture_losses, nfcapd_gaps, neighbour_counters, nfcapd_losses, packet_drops, pmacct_losses,
                        protocol_counters, socket_drops, stream_losses, switch_losses)

UDP = """   sl  local_address rem_address   st tx_queue rx_queue tr tm->when retrnsmt   uid  timeout inode ref pointer drops
 2415: 01001FAC:1283 00000000:0000 07 00000000:00000000 00:00000000 00000000     0        0 99 2 0000000000000000 {drops}
  511: 0100007F:0035 00000000:0000 07 00000000:00000000 00:00000000 00000000     0        0 98 2 0000000000000000 7
"""
SNMP = """Udp: InDatagrams NoPorts InErrors OutDatagrams RcvbufErrors SndbufErrors InCsumErrors IgnoredMulti MemErrors
Udp: 1250 3 0 900 4 0 0 0 0
UdpLite: InDatagrams NoPorts InErrors OutDatagrams RcvbufErrors SndbufErrors InCsumErrors IgnoredMulti MemErrors
UdpLite: 0 0 0 0 0 0 0 0 0
"""
SOCKETS = """Netid State  Recv-Q Send-Q Local Address:Port Peer Address:PortProcess
p_raw UNCONN 0 0 *:p-core * users:(("ovs-vswitchd",pid=1,fd=41)) skmem:(r0,rb212992,t0,tb212992,f0,w0,o176,bl0,d5)
p_raw UNCONN 0 0 *:p-s1   * users:(("ovs-vswitchd",pid=1,fd=42)) skmem:(r0,rb212992,t0,tb212992,f0,w0,o176,bl0,d0)
p_raw UNCONN 0 0 *:eth0   * users:(("dumpcap",pid=2,fd=4)) skmem:(r0,rb212992,t0,tb212992,f0,w0,o176,bl0,d9)
"""


def test_datagrams_that_found_no_room() -> None:
    assert socket_drops(UDP.format(drops=1953), 4739) == 1953
    assert socket_drops(UDP.format(drops=0), 4739) == 0


def test_a_socket_that_is_not_there_is_no_zero() -> None:
    assert socket_drops(UDP.format(drops=0), 4740) is None


def test_counters_of_full_buffers() -> None:
    assert protocol_counters(SNMP) == {"Udp RcvbufErrors": 4, "Udp SndbufErrors": 0}


def test_counters_of_discarded_packets() -> None:
    text = SNMP + "Ip: Forwarding InHdrErrors InDiscards OutDiscards\nIp: 1 9 2 3\nUdp6RcvbufErrors      \t5\nIp6OutDiscards   \t8\n"
    assert protocol_counters(text) == {"Udp RcvbufErrors": 4, "Udp SndbufErrors": 0, "Ip InDiscards": 2, "Ip OutDiscards": 3,
                                       "Udp6RcvbufErrors": 5}
    assert protocol_counters("") == {}


def test_packets_that_waited_for_a_neighbour() -> None:
    text = ("entries  res_failed unresolved_discards table_fulls\n00000004 00000001 0000000a 00000000\n"
            "00000004 00000000 00000010 00000000\n")
    assert neighbour_counters(text) == {"unresolved_discards": 26, "table_fulls": 0}
    assert neighbour_counters("") == {}


def test_counters_that_rose() -> None:
    losses = Counters({"Udp RcvbufErrors": 6, "eth0 rx dropped": 1}).risen(Counters({"Udp RcvbufErrors": 4}), "bill")
    assert [str(one) for one in losses] == ["bill: Udp RcvbufErrors rose by 2", "bill: eth0 rx dropped rose by 1"]
    assert Counters({"a": 4}).risen(Counters({"a": 4}), "bill") == []


def test_packet_sockets_of_the_switch() -> None:
    assert packet_drops(SOCKETS) == {"packet socket at p-core": 5, "packet socket at p-s1": 0}


def test_dumpcap() -> None:
    line = "Packets received/dropped on interface 'eth0': {}/{} (pcap:0/dumpcap:0/flushed:0/ps_ifdrop:0) (100.0%)\n"
    assert capture_losses("sent", "Capturing\n" + line.format(500, 0)) == []
    assert [str(one) for one in capture_losses("sent", line.format(490, 10))] == ["capture sent: 10 packets dropped at eth0"]


def test_a_capture_that_says_nothing_has_lost() -> None:
    assert capture_losses("sent", "Capturing on 'eth0'\n")


def test_logs_of_pmacct() -> None:
    assert pmacct_losses("pmacctd", "NOTICE ( default/core ): [up0,0] received_packets=1258 dropped_packets=0\n") == []
    assert [str(one) for one in pmacct_losses("pmacctd", "NOTICE: [up0,0] received_packets=1258 dropped_packets=3\n")] == [
        "pmacctd: libpcap dropped 3 packets"]
    assert pmacct_losses("nfacctd", "WARN ( default_print/print ): Missing data detected (plugin_buffer_size=..)\n")
    assert pmacct_losses("nfacctd", "WARN: Failed during write: Resource temporarily unavailable\n")


def test_nfcapd() -> None:
    line = "Ident: 'none' Flows: 979, Packets: 1254, Bytes: 771660, Sequence Errors: 8, Bad Packets: {}\n"
    assert nfcapd_losses(line.format(0)) == [] and nfcapd_gaps(line.format(0)) == 8
    assert [str(one) for one in nfcapd_losses(line.format(2))] == ["nfcapd: 2 Bad Packets"]


def test_the_switch() -> None:
    text = "netdev@ovs-netdev:\n  lookups: hit:2700 missed:40 lost:{}\n\nid 1: tx pkts=2500, tx errs={}\n"
    assert switch_losses(text.format(0, 0)) == []
    assert [str(one) for one in switch_losses(text.format(2, 3))] == [
        "Open vSwitch: 2 packets lost between datapath and switch", "Open vSwitch: 3 messages could not be sent"]


def test_messages_that_nobody_received() -> None:
    report = ["wrote a.ipfix: messages 3", "warning wire.pcap: 172.31.0.2:5 to 172.31.0.1:4739 over UDP: answers with 7 ICMP errors",
              "warning wire.pcap: something else"]
    assert len(stream_losses(report)) == 1
