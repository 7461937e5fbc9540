"""Ask: what if, advice, windows, recovery, charts, differences, exports."""
