"""A desk over the program `pls`: networks in, labels, answers in words, traces and pictures out.

The desk judges nothing by itself. Every verdict that it shows is one that `pls` wrote; the desk turns
files into the texts that `pls` reads, runs it as a child process, and says in words what it answered.
None of the desk is proved.
"""

from plsdesk.answers import Answer, parse_answer
from plsdesk.builder import NetworkBuilder
from plsdesk.fault import DeskError
from plsdesk.labels import LabelText, parse_labels, labels_text
from plsdesk.network import Network, Node, Port, State, parse_network
from plsdesk.program import Program, find_program
from plsdesk.schemes import Scheme, parse_scheme

__all__ = [
    "Answer", "DeskError", "LabelText", "Network", "NetworkBuilder", "Node", "Port", "Program", "Scheme",
    "State", "find_program", "labels_text", "parse_answer", "parse_labels", "parse_network", "parse_scheme",
]
