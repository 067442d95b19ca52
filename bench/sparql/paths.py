"""Answers by rdflib: the query as a SPARQL property path over a graph in memory.

    paths.py CASE FILE SECONDS

compares the marked recordings with those in the file, then prints the case, the median time of the query and the number of runs. The
query is prepared before; filling the graph is not timed.
"""

import re
import statistics
import sys
import time

from rdflib import Graph, URIRef
from rdflib.plugins.sparql import prepareQuery

BASE = "http://archive/"


def recording(number):
    return URIRef(f"{BASE}recording/{number}")


def label(number):
    return URIRef(f"{BASE}label/{number}")


def read(name):
    """The start, the query, the links and the marked recordings of a case."""
    start, query, links, marked = 0, "", [], set()
    for line in open(name, encoding="ascii"):
        word, *rest = line.split()
        if word == "start":
            start = int(rest[0])
        elif word == "query":
            query = rest[0]
        elif word == "link":
            links.append(tuple(int(number) for number in rest))
        elif word == "marked":
            marked.add(int(rest[0]))
    return start, query, links, marked


def property_path(query):
    """The labels are the letters from a on; a sequence is written with /."""
    named = re.sub("[a-z]", lambda letter: f"<{label(ord(letter[0]) - ord('a'))}>", query.replace(".", "\0"))
    return named.replace("\0", "/")


def main():
    case, name, seconds = sys.argv[1], sys.argv[2], float(sys.argv[3])
    start, query, links, marked = read(name)
    graph = Graph()
    for source, symbol, target in links:
        graph.add((recording(source), label(symbol), recording(target)))
    prepared = prepareQuery(f"SELECT DISTINCT ?y WHERE {{ <{recording(start)}> {property_path(query)} ?y }}")
    times, begin = [], time.perf_counter()
    while not times or time.perf_counter() - begin < seconds:
        before = time.perf_counter(), time.thread_time()
        found = list(graph.query(prepared))
        times.append(min(time.perf_counter() - before[0], time.thread_time() - before[1]))
        if {int(row[0].rsplit("/", 1)[1]) for row in found} != marked:
            sys.exit(f"rdflib: other marks than the proved operation's at {case}")
    print(f"{case}\trdflib\t{statistics.median(times):.9f}\t{len(times)}")


main()
