interfaces {
    ethernet eth0 {
        address 10.9.0.1/16
        description "customer I"
    }
    ethernet eth1 {
        address 172.31.0.10/31
        description core
        vif 100 {
            address 192.168.100.1/24
        }
    }
    loopback lo {
    }
}
nat {
    source {
        rule 10 {
            outbound-interface eth1
            source {
                address 10.9.0.0/16
            }
            translation {
                address masquerade
            }
        }
    }
}
protocols {
    static {
        route 0.0.0.0/0 {
            next-hop 172.31.0.11 {
            }
        }
    }
}
system {
    flow-accounting {
        disable-imt
        interface eth0
        interface eth1
        netflow {
            engine-id 7
            max-flows 100000
            server 192.0.2.10 {
                port 4739
            }
            server 192.0.2.20 {
                port 2055
            }
            source-ip 198.51.100.9
            timeout {
                expiry-interval 60
            }
            version 10
        }
    }
    host-name gw-1
}


// Warning: Do not remove the following line.
// vyos-config-version: "bgp@1:broadcast-relay@1:conntrack@1"
// Release version: 1.3.2
