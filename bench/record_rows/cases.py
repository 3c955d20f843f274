"""Writes the cases that record.c runs. README.md has their format, and says what is left out."""
from faults import fault_rows
from flow import flow_rows
from operations import value_rows

value_rows()
flow_rows()
fault_rows()
