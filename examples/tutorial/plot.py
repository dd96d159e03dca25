"""Draws the numbers of a table that record_csv.py made, as an SVG picture: plot.py TABLE ENTITY.ATTRIBUTE .."""
import csv
import sys

COLOURS = ["#1f77b4", "#d62728", "#2ca02c", "#ff7f0e", "#9467bd"]


def main() -> None:
    """Draws a line in steps for each name: the value of a time stays until the next one."""
    with open(sys.argv[1], encoding="utf-8", newline="") as file:
        rows = list(csv.DictReader(file))
    names = sys.argv[2:]
    series = [
        [(int(row["time"]), int(row["value"])) for row in rows if f"{row['entity']}.{row['attribute']}" == name]
        for name in names
    ]
    points = [point for line in series for point in line]
    width = max(time for time, _ in points) or 1
    top, bottom = max(value for _, value in points), min(0, *(value for _, value in points))
    print('<svg xmlns="http://www.w3.org/2000/svg" viewBox="0 0 640 320" font-family="sans-serif" font-size="12">')
    for place, (name, line) in enumerate(zip(names, series)):
        colour = COLOURS[place % len(COLOURS)]
        x = [20 + 600 * time // width for time, _ in line]
        y = [300 - 260 * (value - bottom) // ((top - bottom) or 1) for _, value in line]
        path = f"M{x[0]},{y[0]}" + "".join(f" H{right} V{height}" for right, height in zip(x[1:], y[1:]))
        print(f'<path d="{path}" fill="none" stroke="{colour}"/>')
        print(f'<text x="{20 + 200 * place}" y="20" fill="{colour}">{name}</text>')
    print(f'<text x="20" y="316">0</text><text x="600" y="316">{width}</text><text x="20" y="36">{top}</text></svg>')


main()
