"""Tables as people have them, with the sum of each column that has numbers, worked out by hand. The hints are followed, one after
another, and so is the one command for the whole table, with jobs that name the columns of the sums. Days are those since
1970-01-01, by a calendar."""

DAY, TEN = 19752, 36000      # 2024-01-30, and ten o'clock in seconds
SECONDS = DAY * 86400 + TEN

# (the table, the sums); no job names the other columns, which have no numbers.
ROWS = [
    # Read as they are.
    ('id,qty\n1,5\n2,6\n', {'id': 3, 'qty': 11}),
    ('"id","qty"\n"1","5"\n', {'id': 1, 'qty': 5}),
    ('id,qty\n 1 ,\t5\n', {'id': 1, 'qty': 5}),
    ('id,qty\n007,+5\n08,-06\n', {'id': 15, 'qty': -1}),
    ('\ufeffid,qty\r\n1,5\r\n\r\n2,6\r\n', {'id': 3, 'qty': 11}),
    ('"a,b",qty\n1,5\n', {'a,b': 1, 'qty': 5}),
    # Text, and cells without a value.
    ('id,name,qty\n1,Ann,5\n2,Bob,6\n', {'id': 3, 'qty': 11}),
    ('id,code,qty\n1,A12,5\n2,B7,6\n', {'id': 3, 'qty': 11}),
    ("id,buyer's name,qty\n1,Ann,5\n2,Bob,6\n", {'id': 3, 'qty': 11}),
    ('id,"name, first",qty\n1,Ann,5\n2,Bob,6\n', {'id': 3, 'qty': 11}),
    ('id,qty\n1,5\n2,\n3,6\n', {'id': 6, 'qty': 11}),
    ('id,qty,note\n1,5,\n2,,\n3,6,\n', {'id': 6, 'qty': 11}),
    ('id,qty\n1,5\n2,NA\n3,6\n', {'id': 6, 'qty': 11}),
    ('id,price\n1,5.25\n2,NULL\n3,\n4,1.5\n', {'id': 10, 'price': 675}),
    ('id,qty\n1,5\n2,-\n3,6\n', {'id': 6, 'qty': 11}),
    ('id,qty\n1,5\n2,inf\n3,6\n', {'id': 6, 'qty': 11}),
    ('id,qty\n1,5\n2, \n3,6\n', {'id': 6, 'qty': 11}),
    ('id, price\n1, 12.50\n2, 3.99\n3, NA\n', {'id': 6, ' price': 1649}),
    ('id,day,share\n1, 2024-01-30, 5 %\n', {'id': 1, 'day': DAY, 'share': 5}),
    # Numbers with decimals, as pandas and Excel write them.
    ('id,price\n1,12.50\n2,3.99\n', {'id': 3, 'price': 1649}),
    ('id,share\n1,0.1234\n2,0.0051\n', {'id': 3, 'share': 1285}),
    ('id,qty\n0,5.0\n1,\n2,3.0\n', {'id': 3, 'qty': 8}),
    ('id,qty\n0,5.0\n1,7.0\n', {'id': 1, 'qty': 12}),
    ('id,x\n1,0.1\n2,-0.7\n3,12\n', {'id': 6, 'x': 114}),
    ('id,x\n1,0.30000000000000004\n2,1.5\n', {'id': 3, 'x': 1800000}),
    ('id,x\n1,1e3\n2,-1.5E+04\n', {'id': 3, 'x': -14000}),
    ('id,x\n1,1e18\n2,9007199254740994.0\n', {'id': 3, 'x': 1009007199254740994}),
    ('id,x\n1,1.5e-3\n2,2\n', {'id': 3, 'x': 20015}),
    # Numbers as people write them.
    ('id,amount\n1,(123)\n2,45\n', {'id': 3, 'amount': -78}),
    ('id,amount\n1,"(1,234.50)"\n2,$45.00\n', {'id': 3, 'amount': -118950}),
    ('id,amount\n1,12.50-\n2,3.00\n', {'id': 3, 'amount': -950}),
    ('id,amount\n1,\u22125\n2,3\n', {'id': 3, 'amount': -2}),
    ('id,price\n1,"1,234.56"\n2,500.00\n', {'id': 3, 'price': 173456}),
    ('id,price\n1,500.00\n2,"1,234.56"\n', {'id': 3, 'price': 173456}),
    ('id,price\n1,"1.234,56"\n2,"3,99"\n', {'id': 3, 'price': 123855}),
    ('id,price\n1,"1,234"\n2,7\n', {'id': 3, 'price': 1241}),
    ("id,price\n1,1'234\n2,12'345'678\n", {'id': 3, 'price': 12346912}),
    ('id,price\n1,1\u00a0234\n2,7\n', {'id': 3, 'price': 1241}),
    ('id,price\n1,$12.50\n2,-$3\n', {'id': 3, 'price': 950}),
    ('id,price\n1,12.50 \u20ac\n2,7.00 \u20ac\n', {'id': 3, 'price': 1950}),
    ('id,share\n1,12.5%\n2,-3%\n', {'id': 3, 'share': 95}),
    ('id,weight\n1,5 kg\n2,12 kg\n', {'id': 3, 'weight': 17}),
    ('id,weight\n1,5 kg\n2,300 g\n', {'id': 3}),
    ('id,n\n1,1k\n2,3 K\n3,-40\n', {'id': 6, 'n': 3960}),
    ('id,n\n1,1.005k\n2,2M\n', {'id': 3, 'n': 2001005}),
    ('id,n\n1,1.0005k\n2,2\n', {'id': 3, 'n': 10025}),
    ('id,mask\n1,0xff\n2,10\n', {'id': 3, 'mask': 265}),
    ('id,paid\n1,true\n2,False\n3,TRUE\n', {'id': 6, 'paid': 2}),
    ('id,paid\n1,Yes\n2,No\n', {'id': 3, 'paid': 1}),
    ("id,qty\n1,'5'\n2,'6'\n", {'id': 3, 'qty': 11}),
    # Dates and times.
    ('id,day\n1,2024-01-30\n2,2024-01-31\n', {'id': 3, 'day': 2 * DAY + 1}),
    ('id,day\n1,2024/01/30\n', {'id': 1, 'day': DAY}),
    ('id,day\n1,31/01/2024\n2,01/02/2024\n', {'id': 3, 'day': 2 * DAY + 3}),
    ('id,day\n1,01/31/2024\n2,1/2/2024\n', {'id': 3, 'day': 2 * DAY - 27}),
    ('id,day\n1,31-01-2024\n', {'id': 1, 'day': DAY + 1}),
    ('id,day\n1,30 Jan 2024\n2,1 Feb 2024\n', {'id': 3, 'day': 2 * DAY + 2}),
    ('id,day\n1,"Jan 5, 2024"\n2,"Jan 30, 2024"\n', {'id': 3, 'day': 2 * DAY - 25}),
    ('id,day\n1,31.01.2024\n2,1.2.2024\n', {'id': 3, 'day': 2 * DAY + 3}),
    ('id,at\n1,2024-01-30 10:00:00\n', {'id': 1, 'at': SECONDS}),
    ('id,at\n1,2024-01-30T10:00:00\n2,2024-01-30T10:00:01\n', {'id': 3, 'at': 2 * SECONDS + 1}),
    ('id,at\n1,2024-01-30T10:00:00Z\n', {'id': 1, 'at': SECONDS}),
    ('id,at\n1,2024-01-30T10:00:00+02:00\n', {'id': 1, 'at': SECONDS - 7200}),
    ('id,at\n1,2024-01-30T10:00:00.250\n', {'id': 1, 'at': SECONDS}),
    ('id,at\n1,30/01/2024 10:00\n', {'id': 1, 'at': SECONDS}),
    ('id,at\n1,10:30:00\n2,00:00:01\n', {'id': 3, 'at': 37801}),
    ('id,at\n1,10:30\n', {'id': 1, 'at': 37800}),
    ('id,at\n1,10:30 PM\n2,12:05 am\n', {'id': 3, 'at': 81300}),
    ('id,at\n1,9:05:01AM\n', {'id': 1, 'at': 32701}),
    ('id,at\n1,90:00\n2,01:30\n', {'id': 3, 'at': 5490}),
    ('id,at\n1,-1:00:00\n2,25:00:00\n', {'id': 3, 'at': 86400}),
    ('id,at\n1,1/30/2024 10:00 AM\n2,1/31/2024 9:00 PM\n', {'id': 3, 'at': 2 * SECONDS + 86400 + 39600}),
    ('id,at\n1,1/30/2024 9:30\n', {'id': 1, 'at': SECONDS - 1800}),
    # Lines that are no rows, rows of another length, names.
    ('item,qty\nnut,5\nbolt,6\nTotal,11\n', {'qty': 11}),
    ('id,qty\n1,5\nTotal,5\n', {'id': 1, 'qty': 5}),
    ('id,qty,price\n1,5,10\n2,6,20\n3,7,30\n,18,60\n', {'id': 6, 'qty': 18, 'price': 60}),
    ('id,qty\n1,5\n2,6\n3,x\n4,7\n', {'id': 7, 'qty': 18}),
    ('id,qty\n' + ''.join(f'{at},1\n' for at in range(1, 1000)) + '1000,x\n', {'id': 499500, 'qty': 999}),
    ('Sales 2024\nid,qty\n1,5\n2,6\n', {'id': 3, 'qty': 11}),
    ('Sales 2024,\n\nid,qty\n1,5\n2,6\n', {'id': 3, 'qty': 11}),
    ('# made by x\nid,qty\n1,5\n2,6\n', {'id': 3, 'qty': 11}),
    ('id,qty\n# checked\n1,5\n2,6\n', {'id': 3, 'qty': 11}),
    ('id,qty\n1,5\n2\n', {'id': 3, 'qty': 5}),
    ('id,qty,qty\n1,5,7\n2,6,8\n', {'id': 3, 'qty': 11, 'qty_2': 15}),
    # Other signs between cells.
    ('id;price\n1;12,50\n2;3,99\n', {'id': 3, 'price': 1649}),
    ('id\tname\tqty\n1\tAnn, B.\t5\n', {'id': 1, 'qty': 5}),
    ('id|qty\n1|5\n', {'id': 1, 'qty': 5}),
]
# Tables that no command makes right: words that the hint has to have.
BY_HAND = [
    ('id,note,qty\n1,red, blue,5\n2,green,6\n', ['double quotes around the cell']),
    ('id,qty\n1,1,234\n2,6\n', ['inside a number']),
    ('id,n\n1,18446744073709551616\n2,5\n', ['64 bits', 'larger unit']),
    ('id,n\n1,9007199254740993.5\n2,5\n', ['column("n", 1)', '2^53', 'larger unit']),
    ('id,n\n1,9007199254740993.0\n2,5\n', ['2^53', 'larger unit']),
    ('id,day\n1,01/02/2024\n', ['is the day first', '%d/%m/%Y']),
]
# What the view of a table says: all of its lines.
VIEW = ('Sales 2024\nid,day,price,name,qty\n1,2024-01-30,12.50,Ann,\n2,2024-01-31,3.99,Bob,6\n3,2024-02-01,,Cy,x\nTotal,,16.49,,6\n',
        """5 columns, 4 rows
the header is line 2, and what stands above is no part of the table
the last row has totals

  id: integers
  day: dates, %Y-%m-%d
  price: decimals, 2 places, by column("price", 2), 1 blank from row 3 on
  name: text
  qty: integers, 1 blank from row 1 on, in row 3 "x"

tail -n +2 FILE | mlr --csv head -n 3 then filter 'NR != 3' then put '${day} = strptime(${day}, "%Y-%m-%d") // 86400; \
${price} = is_empty(${price}) ? 0 : int(round(${price} * 100))' | streamrun --only-named --blank 0 --columns /dev/stdin JOBS
Left out: row 3, which has a cell that is no number.
Not read: name. Codes for texts: docs/tables.md.
0 stands where a value is missing; mlr filter 'is_not_empty($NAME)' drops these rows.""")
# Tables with their separators, and the row with a double quote that never closes, or None.
OPEN = [('n,t\n1,x\n2,"y\n3,z\n', ',', 2), ('n,t\n1,x\n2,"y"\n3,"z""z"', ',', None), ('n,t\n1,""\n', ',', None), ('n,t\n1,"', ',', 1),
        ('n,t\n1,"""', ',', 1), ('n,t\n1,""""', ',', None), ('n,t\n1,5"\n', ',', None), ('n,"t\n1,x\n', ',', 0), ('"', ',', 0), ('', ',', None),
        ('n;t\n1;"a;b"\n\n2;"c,\n', ';', 2), ('n\tt\r1\t"a""', '\t', 1)]
