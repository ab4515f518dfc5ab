/* Document 01's "Reading", rules 1 to 4, and document 02's rule 5 ("Who leads a pair"), as they are written. */
#ifndef READING_H
#define READING_H

/* Who leads a group of two. Rule 5 is the first; the others are there to be compared with it. */
enum pair_way {
    EARLIER_LEADS, /* the one earlier in the order */
    LOWER_LEADS,
    HIGHER_LEADS,
    AS_GROUPED /* the one that rules 1 to 4 made the leader */
};

/* What old programs did in place of a rule. */
enum habit {
    NO_HABIT,
    LAST_DROPPED,  /* rule 3: no group of three; the last of an odd cycle stays alone */
    FIRST_LEFT_OUT /* rule 4: the first of an odd run stays alone */
};

/* The leader list of any set of holders of n gateways in that order. */
void reading_leaders(int n, const int *order, const int *holder, int *leader);

/* The same with another way in place of rule 5. */
void reading_leaders_by(enum pair_way way, int n, const int *order, const int *holder, int *leader);

/* The same by the rules but for a habit. */
void reading_leaders_as(enum habit habit, int n, const int *order, const int *holder, int *leader);

#endif
