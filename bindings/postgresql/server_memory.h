/*
 * The memory of the library in a server: its calls of malloc, realloc and free come here, by the linker's --wrap (Makefile). Memory is
 * refused where the session's calls hold more than sfq.memory, and where the query is cancelled. A call of the library whose memory is
 * refused ends, gives back what it took, and leaves what it was handed as it was; so it ends soon after a cancel or a timeout, though it
 * asks nobody whether there is one. Nothing here is proved.
 */
#ifndef SFQ_MEMORY_H
#define SFQ_MEMORY_H

/* Raises the error of a call whose memory was refused: that the query is cancelled, or how much memory it may have. */
void refused_memory(void);

/* Defines the setting. Only a superuser may change it. */
void define_memory(void);

#endif
