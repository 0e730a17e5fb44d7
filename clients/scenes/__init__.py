"""Scenes of clients with real git. clients/check runs them."""
