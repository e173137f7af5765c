import matplotlib, rough, rough.plot
table = matplotlib.get_data_path() + "/sample_data/Stocks.csv"
path = rough.Path.from_csv(table, time="Date", channels=["IBM", "AAPL"], values="log")
stream, rounding = path.stream(depth=3)
clock = rounding.clock
year = clock("2008-01-01"), clock("2009-01-01")
print(rounding, stream.signature(*year)[1, 2], stream.log_signature(*year)["[1,2]"], sep="\n")
windows = [(clock(start), clock(stop)) for start, stop in zip(path.times, path.times[12:])]
axes = rough.plot.lines([clock.back(stop) for _, stop in windows], stream.log_signatures(windows), ["[1,2]"])
axes.figure.savefig("areas.svg")
