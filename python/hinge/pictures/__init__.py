"""Pictures and tables of replays."""
