# The widths at which the beam of ../first bends least, by pandas: python3 ../recipes/beam.py
import csv
import pandas

table = pandas.read_csv("beam.dat", sep=" ", quoting=csv.QUOTE_NONE)
best = table.sort_values("deflection").head(3)
print(best[["%eval_id", "width", "deflection"]].to_string(index=False))
