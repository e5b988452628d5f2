"""What merging equal pages saves, and would save, among running processes, counted exactly, and shown.

From the question to the answer:

options     the words of the command line
processes   a process, its files and its names, and whether its memory may be read
choosing    which processes are meant: by number, name, virtual machine, control group, slice or user
areas       the areas of a process that KSM may take, and what is left out
told        what the kernel tells of KSM in one process
pinned      pages that KSM does not merge since more than page tables refers to them
pagemap     which pages of an area are anonymous and in memory, of a fork, or merged already
nodes       on which NUMA node a page lies
blocks      all memory in blocks of addresses, which are read in rounds of chance
reading     the bytes of pages, 1 MB at a time, and what stands for them: keyed digests
sampling    which contents a sample takes
piles       the digests of all pages, 8 bytes a page, and where they were read
walk        what one worker does: a look at its blocks, and a second one that finds what changed
workers     work shared out among children of this program
look        all workers, and what they found
census      how often each content is there, who has it, and what of it is merged already
savings     what each setting of KSM saves, and what that costs
linear      the least value of a sum within bounds, by the simplex method
estimate    what the blocks that were read before an interruption tell of the whole
figures     what each setting saves, exactly or between bounds
excerpt     some of the pages as a script of ksmbook, whose proved counters are compared
kernel      the kernel of this machine, and how its KSM is set
report      all that is told, as one value
advice      what to do then: the commands, and how fast ksmd has to scan
words, text, html_page, heat, json_report, series   the same for a terminal, for a browser or a printer, for programs,
            and over time
program     all of it, and the status
"""
