"""What `bench/judge_checkers` is made of: checkers run over preprocessed programs, what is kept of that, and the table of judgements."""
