# /export terse, RouterOS 7
/interface ethernet set [ find default-name=ether1 ] name=ether1 comment=core
/interface ethernet set [ find default-name=ether2 ] name=ether2 comment="customer F"
/ip address add address=172.31.0.7/31 interface=ether1 network=172.31.0.6
/ip address add address=10.6.0.1/16 interface=ether2 network=10.6.0.0
/ip traffic-flow set enabled=yes interfaces=ether1,ether2 packet-sampling=no cache-entries=64k
/ip traffic-flow target add dst-address=192.0.2.10 port=4739 version=ipfix
/ip traffic-flow target add dst-address=192.0.2.20 port=2055 disabled=yes
/ip firewall nat add chain=srcnat action=masquerade out-interface=ether1 disabled=yes
/system identity set name=gw-6
