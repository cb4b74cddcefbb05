"""Plots of `amr` read, drawn and handed on: see look/README.md."""

from .plots import Box, Level, Plot, PlotFault, finest_masses, parse_plot, parse_plots, read_plot, read_plots

__all__ = ["Box", "Level", "Plot", "PlotFault", "finest_masses", "parse_plot", "parse_plots", "read_plot", "read_plots"]
