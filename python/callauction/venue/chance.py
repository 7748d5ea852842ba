"""The chance of a venue, which nobody who takes part can foretell."""
import random

CHANCE = random.SystemRandom()
