"""mosaik's tutorial's first scenario, demo_1.py, written as a file by `world.py`: python3 mosaik_demo_1.py FILE"""
import sys

from world import World, connect_many_to_one

SIM_CONFIG = {
    "ExampleSim": {"cmd": "%(python)s examplesim.py %(addr)s"},
    "Collector": {"cmd": "%(python)s collector.py %(addr)s"},
}
END = 10

world = World(SIM_CONFIG)

# Start simulators
examplesim = world.start("ExampleSim", eid_prefix="Model_")
collector = world.start("Collector")

# Instantiate models
model = examplesim.ExampleModel(init_val=2)
monitor = collector.Monitor()

# Connect entities
world.connect(model, monitor, "val", "delta")

# Create more entities
more_models = examplesim.ExampleModel.create(2, init_val=3)
connect_many_to_one(world, more_models, monitor, "val", "delta")

world.write(sys.argv[1], until=END)
