# Goes on for ever from its first instruction: it fills the journal with steps.
l:  j l
