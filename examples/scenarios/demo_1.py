"""mosaik's tutorial's first scenario: three models and a collector."""

import pathlib

import mosaikrun as mosaik

# the folder with the collector
EXAMPLES = pathlib.Path(__file__).resolve().parents[1]

SIM_CONFIG = {
    "ExampleSim": {"python": "example_sim:ExampleSim"},
    "Collector": {"cmd": "%(python)s collector.py %(addr)s", "cwd": str(EXAMPLES)},
}
END = 10  # 10 seconds

# Create World
world = mosaik.World(SIM_CONFIG)

# Start simulators
examplesim = world.start("ExampleSim", eid_prefix="Model_")
collector = world.start("Collector")

# Instantiate models
model = examplesim.ExampleModel(init_val=2)
monitor = collector.Monitor()

# Connect entities
world.connect(model, monitor, "val", "delta")

# Create more entities
more_models = examplesim.ExampleModel.create(2, init_val=3)
mosaik.util.connect_many_to_one(world, more_models, monitor, "val", "delta")

# Run simulation
world.run(until=END)
