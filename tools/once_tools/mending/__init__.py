"""Proposals that mend a refuted network: candidates from the refutation, each verified by `once`."""
