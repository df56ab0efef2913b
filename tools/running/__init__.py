"""What keeps a service going around its sessions: the journal of a log, the outbox of a client, the relay from session to session."""
