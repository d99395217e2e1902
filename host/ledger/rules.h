/* The rules that make sure that what the program says is saved is saved. A flag such as -DSAY_AFTER_COMMIT=0 turns one off. host/test must find every
   such wrong build. A right build sets no flag. */
#ifndef RULES_H
#define RULES_H

/* The program says nothing before the commit is answered. */
#ifndef SAY_AFTER_COMMIT
#define SAY_AFTER_COMMIT 1
#endif

/* The program refuses a desk that another person has open. */
#ifndef HEED_HOLDERS
#define HEED_HOLDERS 1
#endif

/* SQLite: a command takes the writer's lock before it reads the sheet, and a commit is on the disk when it is answered. */
#ifndef SQLITE_BEGIN
#define SQLITE_BEGIN "BEGIN IMMEDIATE"
#endif
#ifndef SQLITE_SYNCHRONOUS
#define SQLITE_SYNCHRONOUS "PRAGMA synchronous = FULL"
#endif

/* PostgreSQL: the same two. */
#ifndef POSTGRES_LOCK
#define POSTGRES_LOCK " FOR UPDATE"
#endif
#ifndef POSTGRES_SYNCHRONOUS
#define POSTGRES_SYNCHRONOUS "SET synchronous_commit = on"
#endif

#endif
