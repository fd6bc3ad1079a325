"""Job sheets as people use them: the binary form, the text form, the planner's answer, the picture."""
