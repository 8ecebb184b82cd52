"""Readers and writers of logs: forms of time, tables, JSON, receivers, packing, and AIS sentences with tag blocks."""
