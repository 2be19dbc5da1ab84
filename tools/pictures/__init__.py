"""What the tools that show runs share: `reading` follows a trace, `svg` has shapes and colours, `close_scale` and
`even_scale` draw pictures, `following` computes which statement each line of a run comes from, and `chapters` makes the
data of a page."""
