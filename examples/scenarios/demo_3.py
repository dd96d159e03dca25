"""mosaik's tutorial's loop within one time: agents and their master talk in rounds before the time goes on."""

import pathlib

import mosaikrun as mosaik

# the folder with the collector
EXAMPLES = pathlib.Path(__file__).resolve().parents[1]

SIM_CONFIG = {
    "ExampleSim": {"python": "example_sim:ExampleSim"},
    "ExampleCtrl": {"python": "controllers:LedController"},
    "ExampleMasterCtrl": {"python": "controllers:Master"},
    "Collector": {"cmd": "%(python)s collector.py %(addr)s", "cwd": str(EXAMPLES)},
}
END = 6  # 6 seconds

# Create World
world = mosaik.World(SIM_CONFIG, max_loop_iterations=10)

# Start simulators
examplesim = world.start("ExampleSim", eid_prefix="Model_")
with world.group():
    examplectrl = world.start("ExampleCtrl")
    examplemasterctrl = world.start("ExampleMasterCtrl")
collector = world.start("Collector")

# Instantiate models
models = [examplesim.ExampleModel(init_val=i) for i in (-2, 0, -2)]
agents = examplectrl.Agent.create(len(models))
master_agent = examplemasterctrl.Agent()
monitor = collector.Monitor()

# Connect entities
for model, agent in zip(models, agents):
    world.connect(model, agent, ("val", "val_in"))
    world.connect(agent, model, "delta", time_shifted=True)

for agent in agents:
    world.connect(agent, master_agent, ("delta", "delta_in"))
    world.connect(master_agent, agent, ("delta_out", "delta"), weak=True)

mosaik.util.connect_many_to_one(world, models, monitor, "val", "delta")
mosaik.util.connect_many_to_one(world, agents, monitor, "delta")
world.connect(master_agent, monitor, "delta_out")

# Run simulation
world.run(until=END)
