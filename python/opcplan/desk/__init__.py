"""The desk: one planner for many callers, by HTTP. Parts that speak HTTP need aiohttp."""
