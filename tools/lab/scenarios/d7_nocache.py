"""Open vSwitch without a cache sends a message for each packet."""
from lab.collectors import Collector
from lab.scenario import Scenario
from lab.verdicts import CERTIFICATE, Expected

SCENARIO = Scenario(
    "d7-nocache", "input alone, no cache, 208 KiB of receive buffer", Expected(CERTIFICATE),
    switch=("sampling=1", "obs_domain_id=7", "other_config:enable-output-sampling=true"), gaps=1,
    collectors=(Collector("billing", receive_buffer=212_992),))
