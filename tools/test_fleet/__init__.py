"""What tools/test-fleet is made of: boards that are served, a control node, and what is asked of both."""
