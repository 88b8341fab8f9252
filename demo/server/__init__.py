"""A Replicache server over SQLite or PostgreSQL: the push and pull endpoints (version 1), and pokes.

    bodies          what a request has to be; what is wrong with one that is not
    readable        which values and keys a client can read: no others are stored
    transactions    what a mutator reads and writes
    space           push and pull, in transactions of a database
    databases       what a database does; connections that are kept
      sqlite        one file
      postgres      PostgreSQL; its notes to all servers over it
    pokes           what waits for the next version
    web             HTTP
    losses          what a server loses on purpose

There is one space of rows. It has a version, which each transaction that writes raises by one; each row keeps the
version that wrote it last, and the cookie is the space's version (Replicache: the global version strategy).
"""
