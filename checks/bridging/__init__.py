"""What `bridges.py` and `slurm.py` have of their own.

Netlists of library cells that are made up (`made`), what the cells of bridges/tiny.lib do and what
an SDF file says of them, written apart from bridges/ (`cells`), runs of one gate for each output of
a cell (`ideal`), inputs that are refused (`refusals`), cases of a designer's own (`cases`), RTL and
other formats (`designs`), designs on real libraries (`blocks`, `kinds`, `all_pairs`), and runs of
Icarus Verilog (`icarus`) and of other tools (`tools`).
"""
