"""Proofs of assertions by engines that nobody has to trust, written as bundles for the proved checker."""
