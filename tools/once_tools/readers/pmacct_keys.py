"""Primitives of pmacct's `aggregate`, as axes or as fields that are none."""
from __future__ import annotations

PRIMITIVES = {"src_host": "sourceAddress", "dst_host": "destinationAddress", "src_port": "sourceTransportPort",
              "dst_port": "destinationTransportPort", "proto": "protocolIdentifier", "tos": "ipClassOfService"}
USUAL = "src_host,dst_host,src_port,dst_port,proto,tos"
WITHOUT_AXIS = (
    "none", "src_net", "dst_net", "src_mask", "dst_mask", "src_mac", "dst_mac", "vlan", "in_vlan", "out_vlan",
    "cos", "etype", "src_as", "dst_as", "peer_src_as", "peer_dst_as", "peer_src_ip", "peer_dst_ip", "as_path",
    "std_comm", "ext_comm", "lrg_comm", "local_pref", "med", "src_std_comm", "src_ext_comm", "src_lrg_comm",
    "src_as_path", "src_local_pref", "src_med", "mpls_vpn_rd", "mpls_pw_id", "mpls_label_top", "mpls_label_bottom",
    "mpls_label_stack", "sampling_rate", "sampling_direction", "tcpflags", "in_iface", "out_iface", "flows", "tag",
    "tag2", "label", "class", "src_host_country", "dst_host_country", "src_host_pocode", "dst_host_pocode",
    "src_host_coords", "dst_host_coords", "timestamp_start", "timestamp_end", "timestamp_arrival",
    "timestamp_export", "export_proto_seqno", "export_proto_version", "export_proto_sysid", "tunnel_src_host",
    "tunnel_dst_host", "tunnel_proto", "tunnel_tos", "tunnel_src_port", "tunnel_dst_port", "tunnel_src_mac",
    "tunnel_dst_mac", "vxlan", "nat_event", "post_nat_src_host", "post_nat_dst_host", "post_nat_src_port",
    "post_nat_dst_port", "fw_event", "fwd_status", "src_roa", "dst_roa", "src_net_roa", "dst_net_roa")
