"""Tables of requests with their replies, and what reads and sends them."""
