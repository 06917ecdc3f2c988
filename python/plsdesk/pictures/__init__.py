"""Pictures of networks: DOT for Graphviz, SVG by the desk itself, and a page that steps through a trace."""
