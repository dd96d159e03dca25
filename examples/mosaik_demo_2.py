"""mosaik's tutorial's second scenario, demo_2.py, written as a file by `world.py`: python3 mosaik_demo_2.py FILE"""
import sys

from world import World, connect_many_to_one

SIM_CONFIG = {
    "ExampleSim": {"cmd": "%(python)s examplesim.py %(addr)s"},
    "ExampleCtrl": {"cmd": "%(python)s controller.py %(addr)s"},
    "Collector": {"cmd": "%(python)s collector.py %(addr)s"},
}
END = 10

world = World(SIM_CONFIG)

# Start simulators
examplesim = world.start("ExampleSim", eid_prefix="Model_")
examplectrl = world.start("ExampleCtrl")
collector = world.start("Collector")

# Instantiate models
models = [examplesim.ExampleModel(init_val=i) for i in range(-2, 3, 2)]
agents = examplectrl.Agent.create(len(models))
monitor = collector.Monitor()

# Connect entities
for model, agent in zip(models, agents):
    world.connect(model, agent, ("val", "val_in"))
    world.connect(agent, model, "delta", weak=True)
connect_many_to_one(world, models, monitor, "val", "delta")
connect_many_to_one(world, agents, monitor, "delta")

world.write(sys.argv[1], until=END)
