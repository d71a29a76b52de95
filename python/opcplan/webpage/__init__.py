"""The page that shows a plan, as data and as HTML."""
