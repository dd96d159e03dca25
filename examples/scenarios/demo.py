"""A day of a grid with households and photovoltaics, in the shape of mosaik-demo.

Households and photovoltaics give W with fractions, so `whole.py` makes mW of them: `P_out=1000`. All other simulators
see whole numbers of mW.
"""

import pathlib
import random

import mosaikrun as mosaik
from mosaikrun.util import connect_many_to_one, connect_randomly

HERE = pathlib.Path(__file__).resolve().parent
WHOLE = "%(python)s ../whole.py %(addr)s"
CHILD = "%(python)s -m mosaikrun.child"
SIM_CONFIG = {
    "HouseholdSim": {"cmd": f"{WHOLE} P_out=1000 -- {CHILD} household_sim:HouseholdSim ADDR", "cwd": str(HERE)},
    "PV": {"cmd": f"{WHOLE} P=1000 -- {CHILD} pv_sim:PVSim ADDR", "cwd": str(HERE)},
    "Grid": {"python": "grid_sim:GridSim"},
    "DB": {"cmd": "%(python)s database.py %(addr)s", "cwd": str(HERE)},
}
END = 24 * 3600  # 1 day
PV_DATA = str(HERE / "data" / "pv.csv")
PROFILE_FILE = str(HERE / "data" / "profiles.csv")
GRID_FILE = str(HERE / "data" / "grid.json")


def main():
    random.seed(23)
    world = mosaik.World(SIM_CONFIG)
    create_scenario(world)
    world.run(until=END)  # As fast as possible


def create_scenario(world):
    # Start simulators
    gridsim = world.start("Grid", step_size=60 * 60)
    hhsim = world.start("HouseholdSim")
    pvsim = world.start("PV", datafile=PV_DATA)

    # Instantiate models
    grid = gridsim.Grid(gridfile=GRID_FILE).children
    houses = hhsim.ResidentialLoads(profile_file=PROFILE_FILE).children
    pvs = pvsim.PV.create(6)

    # Connect entities
    connect_buildings_to_grid(world, houses, grid)
    connect_randomly(world, pvs, [e for e in grid if "node" in e.eid], "P")

    # Database
    db = world.start("DB", step_size=60 * 60)
    hdf5 = db.Database()
    connect_many_to_one(world, houses, hdf5, "P_out")
    connect_many_to_one(world, pvs, hdf5, "P")

    nodes = [e for e in grid if e.type in ("RefBus", "PQBus")]
    connect_many_to_one(world, nodes, hdf5, "P")

    branches = [e for e in grid if e.type == "Branch"]
    connect_many_to_one(world, branches, hdf5, "P_from")


def connect_buildings_to_grid(world, houses, grid):
    buses = filter(lambda e: e.type == "PQBus", grid)
    buses = {b.eid.split("-")[1]: b for b in buses}
    house_data = world.get_data(houses, "node_id")
    for house in houses:
        node_id = house_data[house]["node_id"]
        world.connect(house, buses[node_id], ("P_out", "P"))


if __name__ == "__main__":
    main()
