#!/usr/bin/env python3
"""Runs the proved program over flow files: each is told with its first fault, or is accepted.

The lines are those of docs/FORMATS.md. A flow that is accepted is told by what is looked for next.
"""
import sys

from harness import expect_load, expect_refusal, run_parts

NOT_BUILT = "flow.toml is not built yet"

# A table and a source in which nothing is wrong. Their source file is missing.
GOOD = "table={input='a'}\nsource=[{name='a',file='a.csv',columns=['n int'],promise='seq'}]\n"

MISSING = "source a: file is missing"

# The nodes of `NODES` that are built, over the table's input, and those over inputs that aren't there.
BUILT = "a: is used twice"
NO_INPUT = "j: no input l"
NO_OTHER_INPUT = "u: no input b"

# What is wrong behind the source in `SOURCES`.
NEXT = "node 1 name 0: absent"

# Sources.
A = ("a", "'n int','m int'")
B = ("b", "'x int'")

# Bytes that are no document.
NO_DOCUMENTS = [
    b"a = ", b"a", b"[table", b"= 1", b"a = 'x", b"a = 1\na = 2", b"[table]\n[table]\n",
    b"table={input='a',input='b'}", b"source=[{}\n", b"\x00", b"a = '\xff'", b"\xc3", b"# \xed\xa0\x80\n",
    b"\xef\xbb", b"\xef\xbb\xbf\xef\xbb\xbf", b"table=1\rsource=2\r", b"\xfe\xfft\x00a\x00",
]

# Whole flows.
TOPS = [
    ("", "top 0 table 0: absent"),
    ("# nothing\n", "top 0 table 0: absent"),
    ("source=1", "top 0 table 0: absent"),
    ("table=1", "top 0 table 0: not a table"),
    ("table='a'", "top 0 table 0: not a table"),
    ("table=[]", "top 0 table 0: not a table"),
    ("[[table]]\ninput='a'", "top 0 table 0: not a table"),
    ("[table]\ninput='a'", "top 0 source 0: absent"),
    ("table={}\nsource=1", "top 0 source 0: not a list"),
    ("table={}\nsource={}", "top 0 source 0: not a list"),
    ("[table]\n[source]\nname='a'", "top 0 source 0: not a list"),
    ("table={}\nsource=[]", "top 0 source 0: empty"),
    ("table={}\nsource=[1]", "top 0 source 1: not a table"),
    ("table={}\nsource=[{},{},'x',1]", "top 0 source 3: not a table"),
    ("table={}\nsource=[{}]\nnode=1", "top 0 node 0: not a list"),
    ("table={}\nsource=[{}]\nnode={}", "top 0 node 0: not a list"),
    ("table={}\nsource=[{}]\nnode=[{},[]]", "top 0 node 2: not a table"),
    ("table={}\nsource=[{}]\nzeta=1\neta=2", "top 0 eta 0: unknown"),
    ("table={}\nsource=[{}]\nTable=1", "top 0 Table 0: unknown"),
    ("table={}\nsource=[{}]\n''=1", "top 0  0: unknown"),
    ("table={}\nsource=[{}]\ntables.a=1", "top 0 tables 0: unknown"),
    ("table={}\nsource=[{}]\nnode=[]", "table 0 input 0: absent"),
    ("table={}\nsource=[{}]\nnode=[{}]", "table 0 input 0: absent"),
    ("table={input=1}\nsource=[{}]", "table 0 input 0: not text"),
    ("table={input=''}\nsource=[{}]", "table 0 input 0: empty"),
    ("table={input='a b'}\nsource=[{}]", "table 0 input 0: bad name"),
    ("table={input='a',key='a'}\nsource=[{}]", "table 0 key 0: not a list"),
    ("table={input='a',key=['a','none']}\nsource=[{}]", "table 0 key 2: bad name"),
    ("table={input='a',where='n'}\nsource=[{}]", "table 0 where 0: unknown"),
    ("table={input='a',key=['n']}\nsource=[{}]\nnode=[{}]", "source 1 name 0: absent"),
]

# Documents with a byte order mark, and one whose lines end by CRLF.
MARKED = [
    (b"\xef\xbb\xbf", "top 0 table 0: absent"),
    (b"\xef\xbb\xbftable=1", "top 0 table 0: not a table"),
    (b"table=1\r\nsource=2\r\n", "top 0 table 0: not a table"),
]

# What stands in a source, before a good table and a bad node.
SOURCES = [
    ("", "source 1 name 0: absent"),
    ("name=1", "source 1 name 0: not text"),
    ("name=['a']", "source 1 name 0: not text"),
    ("name={}", "source 1 name 0: not text"),
    ("name=2020-01-01", "source 1 name 0: not text"),
    ("name=''", "source 1 name 0: empty"),
    ("name='A'", "source 1 name 0: bad name"),
    ("name='1a'", "source 1 name 0: bad name"),
    ("name='_a'", "source 1 name 0: bad name"),
    ("name='a-b'", "source 1 name 0: bad name"),
    ("name='table'", "source 1 name 0: bad name"),
    ("name='none'", "source 1 name 0: bad name"),
    ("name='né'", "source 1 name 0: bad name"),
    ("name='a23456789_123456789_123456789_123456789_1'", "source 1 name 0: bad name"),
    ("name='a23456789_123456789_123456789_123456789_'", "source 1 file 0: absent"),
    ("file=1,name=1", "source 1 name 0: not text"),
    ("name='tables',file=1", "source 1 file 0: not text"),
    ("name='a',file=''", "source 1 file 0: empty"),
    ("name='a',file='.a'", "source 1 file 0: bad name"),
    ("name='a',file='a/b'", "source 1 file 0: bad name"),
    ("name='a',file='a b'", "source 1 file 0: bad name"),
    ("name='a',file='flow.toml'", "source 1 file 0: bad name"),
    ("name='a',file='table.whl'", "source 1 file 0: bad name"),
    ("name='a',file='é'", "source 1 file 0: bad name"),
    ("name='a',file='-A_z.9'", "source 1 columns 0: absent"),
    ("name='a',file='f',format=1", "source 1 format 0: not text"),
    ("name='a',file='f',format=''", "source 1 format 0: empty"),
    ("name='a',file='f',format='CSV'", "source 1 format 0: bad word"),
    ("name='a',file='f',format='csv',header=[]", "source 1 header 0: not text"),
    ("name='a',file='f',format='packed',header='csv'", "source 1 header 0: bad word"),
    ("name='a',file='f',header=''", "source 1 header 0: empty"),
    ("name='a',file='f',header='names'", "source 1 columns 0: absent"),
    ("name='a',file='f',header='any',columns='n int'", "source 1 columns 0: not a list"),
    ("name='a',file='f',columns={}", "source 1 columns 0: not a list"),
    ("name='a',file='f',columns=[]", "source 1 columns 0: empty"),
    ("name='a',file='f',columns=[1]", "source 1 columns 1: not text"),
    ("name='a',file='f',columns=['n int','']", "source 1 columns 2: empty"),
    ("name='a',file='f',columns=['n int','m int',['k int']]", "source 1 columns 3: not text"),
    ("name='a',file='f',columns=['N int']", "source 1 columns 1: bad name"),
    ("name='a',file='f',columns=[' n int']", "source 1 columns 1: bad name"),
    ("name='a',file='f',columns=['table int']", "source 1 columns 1: bad name"),
    ("name='a',file='f',columns=['n\\tint']", "source 1 columns 1: bad name"),
    ("name='a',file='f',columns=['n']", "source 1 columns 1: bad word"),
    ("name='a',file='f',columns=['n ']", "source 1 columns 1: bad word"),
    ("name='a',file='f',columns=['n  int']", "source 1 columns 1: bad word"),
    ("name='a',file='f',columns=['n int ']", "source 1 columns 1: bad word"),
    ("name='a',file='f',columns=['n INT']", "source 1 columns 1: bad word"),
    ("name='a',file='f',columns=['n dec']", "source 1 columns 1: bad word"),
    ("name='a',file='f',columns=['n dec0']", "source 1 columns 1: bad word"),
    ("name='a',file='f',columns=['n dec7']", "source 1 columns 1: bad word"),
    ("name='a',file='f',columns=['n dec10']", "source 1 columns 1: bad word"),
    ("name='a',file='f',columns=['n text??']", "source 1 columns 1: bad word"),
    ("name='a',file='f',columns=['n ?']", "source 1 columns 1: bad word"),
    ("name='a',file='f',columns=['n int ?']", "source 1 columns 1: bad word"),
    ("name='a',file='f',columns=['n int','n int?','x dec1','y dec6?','z text','w text?']",
     "source 1 promise 0: absent"),
    ("name='a',file='f',columns=['n int'],promise=1", "source 1 promise 0: not text"),
    ("name='a',file='f',columns=['n int'],promise=''", "source 1 promise 0: empty"),
    ("name='a',file='f',columns=['n int'],promise='Seq'", "source 1 promise 0: bad word"),
    ("name='a',file='f',columns=['n int'],promise='seq'", NEXT),
    ("name='a',file='f',columns=['n int'],promise='set'", NEXT),
    ("name='a',file='f',columns=['n int'],promise='seq',key=1", "source 1 key 0: not a list"),
    ("name='a',file='f',columns=['n int'],promise='seq',key=[]", "source 1 key 0: empty"),
    ("name='a',file='f',columns=['n int'],promise='seq',key=['n',2]", "source 1 key 2: not text"),
    ("name='a',file='f',columns=['n int'],promise='seq',key=['n','']", "source 1 key 2: empty"),
    ("name='a',file='f',columns=['n int'],promise='seq',key=['n','m','N']", "source 1 key 3: bad name"),
    ("name='a',file='f',columns=['n int'],promise='seq',key=['n','n']", NEXT),
    ("name='a',file='f',columns=['n int'],promise='seq',grouped='n'", "source 1 grouped 0: not a list"),
    ("name='a',file='f',columns=['n int'],promise='seq',grouped=[]", "source 1 grouped 0: empty"),
    ("name='a',file='f',columns=['n int'],promise='seq',grouped=[{}]", "source 1 grouped 1: not text"),
    ("name='a',file='f',columns=['n int'],promise='seq',grouped=['table']", "source 1 grouped 1: bad name"),
    ("name='a',file='f',columns=['n int'],promise='seq',grouped=['n'],zz=1", "source 1 zz 0: unknown"),
    ("zz=1,aa=2,name='a',file='f',columns=['n int']", "source 1 promise 0: absent"),
    ("zz=1,aa=2,name='a',file='f',columns=['n int'],promise='set'", "source 1 aa 0: unknown"),
    ("''=1,aa=2,name='a',file='f',columns=['n int'],promise='set'", "source 1  0: unknown"),
    ("Name='a',name='a',file='f',columns=['n int'],promise='set'", "source 1 Name 0: unknown"),
    ("input='a',name='a',file='f',columns=['n int'],promise='set'", "source 1 input 0: unknown"),
    ("\"a\\nb\"=1,name='a',file='f',columns=['n int'],promise='set'", "source 1 a\nb 0: unknown"),
    ("name='b',file='f',columns=['n int'],promise='set'},{},{name='c'", "source 2 name 0: absent"),
]

# What stands in a node, before a good table and source.
NODES = [
    ("", "node 1 name 0: absent"),
    ("name=1", "node 1 name 0: not text"),
    ("name=''", "node 1 name 0: empty"),
    ("name='S'", "node 1 name 0: bad name"),
    ("name='s'", "node 1 kind 0: absent"),
    ("name='s',kind=1", "node 1 kind 0: not text"),
    ("name='s',kind=''", "node 1 kind 0: empty"),
    ("name='s',kind='Select'", "node 1 kind 0: bad word"),
    ("name='s',kind='selects'", "node 1 kind 0: bad word"),
    ("name='s',kind='source',zz=1", "node 1 kind 0: bad word"),
    ("name='s',kind='select'", "node 1 input 0: absent"),
    ("name='s',kind='select',where='n',zz=1", "node 1 input 0: absent"),
    ("name='s',kind='select',input=1", "node 1 input 0: not text"),
    ("name='s',kind='select',input=''", "node 1 input 0: empty"),
    ("name='s',kind='select',input='A'", "node 1 input 0: bad name"),
    ("name='s',kind='select',input='a'", "node 1 where 0: absent"),
    ("name='s',kind='select',input='a',where=1", "node 1 where 0: not text"),
    ("name='s',kind='select',input='a',where=''", "node 1 where 0: empty"),
    ("name='s',kind='select',input='a',where='any text }'", BUILT),
    ("name='s',kind='select',input='a',where='n',columns=['n']", "node 1 columns 0: unknown"),
    ("name='s',kind='select',input='a',where='n',left='a',test='n'", "node 1 left 0: unknown"),
    ("name='p',kind='project',input='a'", "node 1 columns 0: absent"),
    ("name='p',kind='project',input='a',columns='n'", "node 1 columns 0: not a list"),
    ("name='p',kind='project',input='a',columns=[]", "node 1 columns 0: empty"),
    ("name='p',kind='project',input='a',columns=['n',1]", "node 1 columns 2: not text"),
    ("name='p',kind='project',input='a',columns=['n','n as m']", BUILT),
    ("name='p',kind='project',input='a',columns=['N']", "node 1 columns 1: bad name"),
    ("name='p',kind='project',input='a',columns=['N as m']", "node 1 columns 1: bad name"),
    ("name='p',kind='project',input='a',columns=['n as']", "node 1 columns 1: bad word"),
    ("name='p',kind='project',input='a',columns=['n as ']", "node 1 columns 1: bad word"),
    ("name='p',kind='project',input='a',columns=['n as M']", "node 1 columns 1: bad word"),
    ("name='p',kind='project',input='a',columns=['n as table']", "node 1 columns 1: bad word"),
    ("name='p',kind='project',input='a',columns=['n as m x']", "node 1 columns 1: bad word"),
    ("name='p',kind='project',input='a',columns=['n  as m']", "node 1 columns 1: bad word"),
    ("name='m',kind='map',input='a'", "node 1 set 0: absent"),
    ("name='m',kind='map',input='a',set=[]", "node 1 set 0: empty"),
    ("name='m',kind='map',input='a',set=['n = 1','m = ','n = n  +  1']", BUILT),
    ("name='m',kind='map',input='a',set=['n']", "node 1 set 1: bad word"),
    ("name='m',kind='map',input='a',set=['n =']", "node 1 set 1: bad word"),
    ("name='m',kind='map',input='a',set=['n =1']", "node 1 set 1: bad word"),
    ("name='m',kind='map',input='a',set=['n= 1']", "node 1 set 1: bad name"),
    ("name='m',kind='map',input='a',set=['none = 1']", "node 1 set 1: bad name"),
    ("name='j',kind='join'", "node 1 left 0: absent"),
    ("name='j',kind='join',left='l'", "node 1 right 0: absent"),
    ("name='j',kind='join',left='l',right=1", "node 1 right 0: not text"),
    ("name='j',kind='join',left='l',right='r'", "node 1 on 0: absent"),
    ("name='j',kind='join',left='l',right='r',on=['n','n = m']", NO_INPUT),
    ("name='j',kind='join',left='l',right='r',on=['n = M']", "node 1 on 1: bad word"),
    ("name='j',kind='join',left='l',right='r',on=['n =m']", "node 1 on 1: bad word"),
    ("name='j',kind='join',left='l',right='r',on=['n = m = k']", "node 1 on 1: bad word"),
    ("name='j',kind='join',left='l',right='r',on=['n','M = n']", "node 1 on 2: bad name"),
    ("name='j',kind='join',left='l',right='r',on=['n'],input='l'", "node 1 input 0: unknown"),
    ("name='j',kind='lookup',left='l',right='r',on=['n']", NO_INPUT),
    ("name='j',kind='lookup',left='l',right='r',on=[]", "node 1 on 0: empty"),
    ("name='g',kind='aggregate',input='a'", "node 1 by 0: absent"),
    ("name='g',kind='aggregate',input='a',by=['n','N']", "node 1 by 2: bad name"),
    ("name='g',kind='aggregate',input='a',by=['n']", "node 1 make 0: absent"),
    ("name='g',kind='aggregate',input='a',by=['n'],make=['c = count']", "node 1 order 0: absent"),
    ("name='g',kind='aggregate',input='a',by=['n'],"
     "make=['c = count','d = count n','s = sum n','t = min n','u = max n'],order='first'",
     BUILT),
    ("name='g',kind='aggregate',input='a',by=['n'],make=['c = count'],order='key'", BUILT),
    ("name='g',kind='aggregate',input='a',by=['n'],make=['c = count'],order='append'",
     "node 1 order 0: bad word"),
    ("name='g',kind='aggregate',input='a',by=['n'],make=['c']", "node 1 make 1: bad word"),
    ("name='g',kind='aggregate',input='a',by=['n'],make=['C = count']", "node 1 make 1: bad name"),
    ("name='g',kind='aggregate',input='a',by=['n'],make=['c = count ']", "node 1 make 1: bad word"),
    ("name='g',kind='aggregate',input='a',by=['n'],make=['c = sum']", "node 1 make 1: bad word"),
    ("name='g',kind='aggregate',input='a',by=['n'],make=['c = sum N']", "node 1 make 1: bad word"),
    ("name='g',kind='aggregate',input='a',by=['n'],make=['c = avg n']", "node 1 make 1: bad word"),
    ("name='o',kind='sort',input='a'", "node 1 by 0: absent"),
    ("name='o',kind='sort',input='a',by=['n','n']", BUILT),
    ("name='o',kind='sort',input='a',by=['n desc']", "node 1 by 1: bad name"),
    ("name='d',kind='distinct',input='a'", BUILT),
    ("name='d',kind='distinct',input='a',by=['n']", "node 1 by 0: unknown"),
    ("name='u',kind='union',input='a'", "node 1 inputs 0: absent"),
    ("name='u',kind='union',inputs='a'", "node 1 inputs 0: not a list"),
    ("name='u',kind='union',inputs=['a']", "node 1 inputs 0: empty"),
    ("name='u',kind='union',inputs=['a','B']", "node 1 inputs 2: bad name"),
    ("name='u',kind='union',inputs=['a','b']", "node 1 order 0: absent"),
    ("name='u',kind='union',inputs=['a','b'],order='first'", "node 1 order 0: bad word"),
    ("name='u',kind='union',inputs=['a','b'],order='append'", NO_OTHER_INPUT),
    ("name='u',kind='union',inputs=['a','b'],order='any'", NOT_BUILT),
    ("name='u',kind='union',inputs=['a','b'],order='any',input='a'", "node 1 input 0: unknown"),
    ("name='n',kind='number',input='a'", "node 1 column 0: absent"),
    ("name='n',kind='number',input='a',column=1", "node 1 column 0: not text"),
    ("name='n',kind='number',input='a',column='N'", "node 1 column 0: bad name"),
    ("name='n',kind='number',input='a',column='i'", NOT_BUILT),
    ("name='d',kind='distinct',input='a',declare='order-free'", "node 1 declare 0: not a list"),
    ("name='d',kind='distinct',input='a',declare=[]", "node 1 declare 0: empty"),
    ("name='d',kind='distinct',input='a',declare=['set-to-seq','in-det-out','order-free',1]",
     "node 1 declare 4: not text"),
    ("name='d',kind='distinct',input='a',"
     "declare=['map-to-one of a','suffix-safe of a','drives of a','no-hidden-contributors of a']",
     NOT_BUILT),
    ("name='d',kind='distinct',input='a',declare=['drives of b']", "node 1 declare 1: bad word"),
    ("name='d',kind='distinct',input='a',declare=['drives of ']", "node 1 declare 1: bad word"),
    ("name='d',kind='distinct',input='a',declare=['drives']", "node 1 declare 1: bad word"),
    ("name='d',kind='distinct',input='a',declare=['order-free ']", "node 1 declare 1: bad word"),
    ("name='j',kind='join',left='l',right='r',on=['n'],declare=['drives of r','drives of l','drives of n']",
     "node 1 declare 3: bad word"),
    ("name='u',kind='union',inputs=['a','b'],order='any',declare=['drives of b','drives of a']", NOT_BUILT),
    ("name='d',kind='distinct',input='a',declare=['order-free'],declared=1", "node 1 declared 0: unknown"),
    ("name='d',kind='distinct',input='a'},{name='e',kind='sort',input='d',by=['n','M']",
     "node 2 by 2: bad name"),
]

# Names that do not fit together.
NAMES = [
    ("a", [A, A], [], "a: name is used twice"),
    ("a", [A], [("a", "a", "n > 1")], "a: name is used twice"),
    ("s", [A], [("s", "a", "n > 1"), ("s", "a", "n > 1")], "s: name is used twice"),
    ("s", [A, B], [("b", "a", "n > 1"), ("a", "b", "n > 1")], "b: name is used twice"),
    ("s", [A], [("s", "a", "n > 1"), ("t", "s", "n > 1"), ("t", "t", "n > 1"), ("s", "t", "n > 1")],
     "t: name is used twice"),
    ("x", [A], [], "table: no input x"),
    ("s", [A], [("s", "x", "n > 1")], "s: no input x"),
    ("t", [A], [("s", "x", "n > 1"), ("t", "y", "n > 1")], "s: no input x"),
    ("z", [A], [("s", "x", "n > 1")], "s: no input x"),
    ("t", [A], [("s", "a", "n > 1"), ("t", "y", "n > 1")], "t: no input y"),
    ("z", [A], [("s", "a", "n > 1")], "table: no input z"),
    ("a", [A], [("s", "a", "n > 1")], "a: is used twice"),
    ("s", [A], [("s", "a", "n > 1"), ("t", "a", "n > 1")], "a: is used twice"),
    ("s", [A], [("s", "s", "n > 1")], "s: is used twice"),
    ("s", [A], [("s", "t", "n > 1"), ("t", "s", "n > 1")], "s: is used twice"),
    ("r", [A], [("r", "s", "n > 1"), ("s", "t", "n > 1"), ("t", "s", "n > 1")], "s: is used twice"),
    ("t", [A], [("s", "t", "n > 1"), ("t", "u", "n > 1"), ("u", "s", "n > 1")], "t: is used twice"),
    ("s", [A, B], [("s", "a", "n > 1"), ("t", "a", "n > 1"), ("u", "b", "x > 1"), ("v", "b", "x > 1")],
     "a: is used twice"),
    ("s", [A], [("s", "a", "n > 1"), ("t", "a", "n > 1"), ("u", "a", "n > 1")], "a: is used twice"),
    ("t", [A], [("s", "a", "n > 1"), ("t", "s", "n > 1"), ("u", "s", "n > 1")], "s: is used twice"),
    ("a", [A, B], [], "b: is not reached from the table"),
    ("b", [A, B], [], "a: is not reached from the table"),
    ("a", [A], [("s", "s", "n > 1")], "s: is not reached from the table"),
    ("a", [A], [("s", "t", "n > 1"), ("t", "s", "n > 1")], "s: is not reached from the table"),
    ("s", [A], [("s", "a", "n > 1"), ("t", "u", "n > 1"), ("u", "t", "n > 1")],
     "t: is not reached from the table"),
    ("a", [A, B], [("s", "b", "x > 1")], "b: is not reached from the table"),
    ("s", [A, B], [("s", "b", "x > 1")], "a: is not reached from the table"),
]

# Columns that are not there once.
COLUMNS = [
    ("s", [A], [("s", "a", "k > 1")], "s: unknown column k"),
    ("p", [A], [("p", "a", "'k'")], "p: unknown column k"),
    ("p", [A], [("p", "a", "'n','k','j'")], "p: unknown column k"),
    ("p", [A], [("p", "a", "'k as n'")], "p: unknown column k"),
    ("p", [A], [("p", "a", "'n','n'")], "p: column n comes twice"),
    ("p", [A], [("p", "a", "'n','m as n'")], "p: column n comes twice"),
    ("p", [A], [("p", "a", "'n','m','n as m'")], "p: column m comes twice"),
    ("p", [A], [("p", "a", "'n','m','m as m','n as n'")], "p: column m comes twice"),
    ("a", [("a", "'n int','n int'")], [], "a: column n comes twice"),
    ("a", [("a", "'n int'],key=['k'")], [], "a: unknown column k"),
    ("a", [("a", "'n int'],key=['n','n'")], [], "a: column n comes twice"),
    ("a", [("a", "'n int'],grouped=['k'")], [], "a: unknown column k"),
    ("a", [("a", "'n int'],grouped=['n','n'")], [], "a: column n comes twice"),
    ("s", [A], [("p", "a", "'m'"), ("s", "p", "n > 1")], "s: unknown column n"),
    ("s", [A], [("p", "a", "'n as k'"), ("s", "p", "n = 1")], "s: unknown column n"),
]

# Two faults, of which the first is told.
ORDERS = [
    ("s", [A], [("s", "x", "n > 1"), ("s", "a", "n > 1")], "s: name is used twice"),
    ("x", [A, A], [], "a: name is used twice"),
    ("a", [A], [("s", "a", "n > 1"), ("s", "a", "n > 1")], "s: name is used twice"),
    ("a", [A, A, B], [], "a: name is used twice"),
    ("s", [A], [("s", "a", "n > 1"), ("t", "a", "n > 1"), ("u", "x", "n > 1")], "u: no input x"),
    ("x", [A], [("s", "a", "n > 1"), ("t", "a", "n > 1")], "table: no input x"),
    ("x", [A, B], [], "table: no input x"),
    ("x", [("a", "'n int','n int'")], [], "table: no input x"),
    ("s", [A, B], [("s", "b", "x > 1"), ("t", "b", "x > 1")], "b: is used twice"),
    ("a", [("a", "'n int','n int'")], [("s", "a", "n > 1")], "a: is used twice"),
    ("a", [("a", "'n int','n int'"), B], [], "b: is not reached from the table"),
    ("p", [A], [("p", "a", "'n','n','k'")], "p: unknown column k"),
    ("s", [("a", "'n int'],key=['k'")], [("s", "a", "j > 1")], "a: unknown column k"),
    ("p", [A], [("p", "s", "'j'"), ("s", "a", "k > 1")], "s: unknown column k"),
    ("a", [("a", "'n int','n int'],key=['k'")], [], "a: column n comes twice"),
    ("a", [("a", "'n int'],key=['n','n'],grouped=['k'")], [], "a: column n comes twice"),
    ("a", [("a", "'n int'],key=['n','n','k'")], [], "a: unknown column k"),
]

# What a source may say, and what is looked for next.
SOURCE_FORMS = [
    ({"format": "'csv'"}, MISSING),
    ({"header": "'any'", "key": "['n']"}, MISSING),
    ({"header": "'names'", "grouped": "['n']"}, MISSING),
    ({"columns": "['n int','m int?','d dec1','e dec6?','s text','t text?']"}, MISSING),
    ({"format": "'packed'"}, NOT_BUILT),
    ({"promise": "'set'"}, NOT_BUILT),
]

# The table's input, what follows the columns n and m of the source, the nodes, the source's rows, and the table's.
MEANINGS = [
    ("a", "", [], [], []),
    ("a", "", [], [(1, 2), (1, 2), (0, 5)], [(1, 2), (1, 2), (0, 5)]),
    ("a", "],key=['m','n'", [], [(1, 2)], [(1, 2)]),
    ("a", "],grouped=['m'", [], [(1, 2)], [(1, 2)]),
    ("a", "],key=['n'],grouped=['m','n'", [], [(1, 2)], [(1, 2)]),
    ("s", "", [("s", "a", "n > 1")], [(1, 9), (2, 8), (3, 7), (2, 8)], [(2, 8), (3, 7), (2, 8)]),
    ("s", "", [("s", "a", "m = 8")], [(1, 9), (2, 8), (8, 7)], [(2, 8)]),
    ("s", "", [("s", "a", "n < 0")], [(1, 9), (2, 8)], []),
    ("p", "", [("p", "a", "'m','n as k'")], [(1, 9), (2, 8)], [(9, 1), (8, 2)]),
    ("p", "", [("p", "a", "'m'")], [(1, 9), (2, 9)], [(9,), (9,)]),
    ("p", "", [("p", "a", "'n','n as k'")], [(1, 9), (2, 8)], [(1, 1), (2, 2)]),
    ("p", "", [("p", "a", "'n as m','m as n'")], [(1, 9), (2, 8)], [(1, 9), (2, 8)]),
    ("q", "", [("p", "a", "'n as m','m as n'"), ("q", "p", "'n as k'")], [(1, 9), (2, 8)], [(9,), (8,)]),
    ("s", "", [("p", "a", "'n as k'"), ("s", "p", "k < 5")], [(7, 1), (0, 2), (4, 3)], [(0,), (4,)]),
    ("s", "", [("p", "a", "'m as n'"), ("s", "p", "n > 1")], [(7, 1), (0, 2), (7, 3)], [(2,), (3,)]),
    ("p", "", [("p", "s", "'m as n'"), ("s", "a", "n > 1")], [(7, 1), (0, 2), (7, 3)], [(1,), (3,)]),
]

# Expressions, and which of 4, 5 and 6 they keep.
COMPARISONS = [
    ("n = 5", [5]), ("n <> 5", [4, 6]), ("n < 5", [4]), ("n <= 5", [4, 5]), ("n > 5", [6]), ("n >= 5", [5, 6]),
]


def expect_told(flow, line):
    """A load of this flow in a folder without other files: its line, and no table."""
    text = flow if isinstance(flow, bytes) else flow.encode()
    status = 4 if line.startswith("source ") else 3
    expect_refusal(f"the flow {text!r:.200}", {"flow.toml": text}, status, line)


def documents():
    for text in NO_DOCUMENTS:
        expect_told(text, "flow.toml is not TOML")
    for text, line in TOPS + MARKED:
        expect_told(text, "flow.toml " + line)
    expect_told("a=" + "[" * 60 + "]" * 60, "flow.toml top 0 table 0: absent")
    expect_told("a=" + "[" * 9000 + "]" * 9000, "flow.toml is not TOML")
    expect_told("[" * 65536, "flow.toml is not TOML")
    expect_told(GOOD, MISSING)
    expect_told(GOOD + "#" * (65536 - len(GOOD)), MISSING)
    expect_told(GOOD + "#" * (65537 - len(GOOD)), "flow.toml has 65537 bytes")
    expect_told(GOOD + "k" * 4096 + "=1", "flow.toml top 0 " + "k" * 4096 + " 0: unknown")
    expect_told(GOOD + "k" * 4097 + "=1", "flow.toml top 0  0: unknown")


def source(**keys):
    """A source with these keys in place of those of a good one."""
    keys = {"name": "'a'", "file": "'a.csv'", "columns": "['n int']", "promise": "'seq'"} | keys
    return "{" + ",".join(f"{key}={value}" for key, value in keys.items()) + "}"


def sources():
    for text, line in SOURCES:
        expect_told(f"source=[{{{text}}}]\ntable={{input='a'}}\nnode=[{{}}]\n", "flow.toml " + line)
    for text, line in [
            (",".join([source()] * 16), "a: name is used twice"),
            (",".join([source()] * 17), "flow.toml top 0 source 0: too many"),
            (source(columns=["n int"] * 64), "a: column n comes twice"),
            (source(columns=["n int"] * 65), "flow.toml source 1 columns 0: too many"),
            (source(file=f"'{'f' * 100}'"), MISSING),
            (source(file=f"'{'f' * 101}'"), "flow.toml source 1 file 0: bad name"),
            (source(file=f"'{'f' * 4096}'"), "flow.toml source 1 file 0: bad name"),
            (source(file=f"'{'f' * 4097}'"), "flow.toml source 1 file 0: too long"),
            (source(columns=["n int", "n" * 4090 + " int"]), "flow.toml source 1 columns 2: bad name"),
            (source(columns=["n int", "n" * 4093 + " int"]), "flow.toml source 1 columns 2: too long")]:
        expect_told(f"table={{input='a'}}\nsource=[{text}]", line)


def nodes():
    for text, line in NODES:
        told = line if line in (BUILT, NO_INPUT, NO_OTHER_INPUT, NOT_BUILT) else "flow.toml " + line
        expect_told(f"node=[{{{text}}}]\n{GOOD}", told)
    for text, line in [
            ("{name='d',kind='distinct',input='a'}," * 64, "d: name is used twice"),
            ("{name='d',kind='distinct',input='a'}," * 65, "flow.toml top 0 node 0: too many"),
            ("{name='u',kind='union',inputs=[" + "'a'," * 16 + "],order='any'}", NOT_BUILT),
            ("{name='u',kind='union',inputs=[" + "'a'," * 17 + "],order='any'}",
             "flow.toml node 1 inputs 0: too many"),
            ("{name='s',kind='select',input='a',where='" + "n" * 4096 + "'}", BUILT),
            ("{name='s',kind='select',input='a',where='" + "n" * 4097 + "'}",
             "flow.toml node 1 where 0: too long")]:
        expect_told(f"{GOOD}node=[{text}]", line)


def flow_of(root, sources, nodes):
    """Sources are a name and what stands in their columns; nodes a name, an input, and columns or an expression."""
    text = "".join(f"{{name='{name}',file='{name}.csv',columns=[{columns}],promise='seq'}},"
                   for name, columns in sources)
    text = f"table={{input='{root}'}}\nsource=[{text}]\nnode=["
    for name, taken, what in nodes:
        rest = (f"kind='project',columns=[{what}]" if what.startswith("'")
                else f"kind='select',where=\"{what}\"")
        text += f"{{name='{name}',input='{taken}',{rest}}},"
    return text + "]\n"


def names():
    for root, sources, nodes, line in NAMES + COLUMNS + ORDERS:
        expect_told(flow_of(root, sources, nodes), line)


def what_is_built():
    for keys, line in SOURCE_FORMS:
        expect_told(f"table={{input='a'}}\nsource=[{source(**keys)}]", line)
    expect_told(f"table={{input='a',key=['n']}}\nsource=[{source()}]", NOT_BUILT)
    node = "{name='p',kind='project',input='a',columns=['n'],declare=['order-free']}"
    expect_told(f"table={{input='p'}}\nsource=[{source()}]\nnode=[{node}]", NOT_BUILT)


def meanings():
    for root, tail, nodes, rows, wanted in MEANINGS:
        flow = flow_of(root, [("a", "'n int','m int'" + tail)], nodes)
        text = "n,m\n" + "".join(f"{n},{m}\n" for n, m in rows)
        expect_load(f"the flow {flow}", {"flow.toml": flow.encode(), "a.csv": text.encode()}, wanted)
    for text, wanted in COMPARISONS:
        flow = flow_of("s", [("a", "'n int'")], [("s", "a", text)])
        files = {"flow.toml": flow.encode(), "a.csv": b"n\n4\n5\n6\n"}
        expect_load(f"the rows where {text}", files, [(n,) for n in wanted])


if __name__ == "__main__":
    sys.exit(run_parts("flow texts", [documents, sources, nodes, names, what_is_built, meanings]))
