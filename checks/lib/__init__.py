"""What the checks have in common: how one is called and how it ends (`check`), how a program is run
(`running`), where things stand (`places`), netlists and questions that are made (`netlists`,
`questions`), runs of many pairs side by side (`event_queue`), leaves by spans (`refuting`,
`tampering`) and whether they are true (`truth`), how a report is read (`reports`), what shells
complete (`shells`), circuits and runs that are measured (`circuits`, `measuring`), and programs
that lie, on which the checks are tested (`lies`).
The files in C stand between the program and the C library.
"""
