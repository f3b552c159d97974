import matplotlib.pyplot as plot
import pandas
import streamrun

ledger = pandas.read_csv('examples/gallery/ledger.csv')
report = streamrun.run('''balance = column("amount").prefix(Long::sum).toArray()
                          lowest = result(balance).min()''', ledger)
plot.plot(report['balance'])
plot.savefig('balance.svg')
print('lowest', report['lowest'])
