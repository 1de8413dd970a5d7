"""A simulator of hostile runs of `hrdb step`, and a judge of its reports: `python3 -m sim` says how it is used."""
