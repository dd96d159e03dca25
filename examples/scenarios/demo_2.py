"""mosaik's tutorial's second scenario: a controller that answers within the same time, over weak connections."""

import pathlib

import mosaikrun as mosaik

# the folder with the collector
EXAMPLES = pathlib.Path(__file__).resolve().parents[1]

SIM_CONFIG = {
    "ExampleSim": {"python": "example_sim:ExampleSim"},
    "ExampleCtrl": {"python": "controllers:Controller"},
    "Collector": {"cmd": "%(python)s collector.py %(addr)s", "cwd": str(EXAMPLES)},
}
END = 10  # 10 seconds

# Create World
world = mosaik.World(SIM_CONFIG)

# Start simulators
with world.group():
    examplesim = world.start("ExampleSim", eid_prefix="Model_")
    examplectrl = world.start("ExampleCtrl")
collector = world.start("Collector")

# Instantiate models
models = [examplesim.ExampleModel(init_val=i) for i in range(-2, 3, 2)]
agents = examplectrl.Agent.create(len(models))
monitor = collector.Monitor()

# Connect entities
for model, agent in zip(models, agents):
    world.connect(model, agent, ("val", "val_in"))
    world.connect(agent, model, "delta", weak=True)

mosaik.util.connect_many_to_one(world, models, monitor, "val", "delta")
mosaik.util.connect_many_to_one(world, agents, monitor, "delta")

# Run simulation
world.run(until=END)
