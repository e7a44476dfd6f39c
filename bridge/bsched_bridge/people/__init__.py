"""Users, teams and their computers: what is kept of them, and what is public.

hosts            the hosts that the bridge knows, and the numbers that their clients got
members          the accounts that the bridge knows
passwords        what is kept of a password
names            names of users and teams
team_rows        how a user leaves a team
barring          those whose computers are refused, and how an account is deleted
held_back        which hosts get fewer jobs, after errors
archives         the credit from earlier files of the project, which is added to replies
recent_credit    recent average credit
credit_days      credit by days
directory        users and computers by credit and by name
measurements     how calls, reports and uploads end, and how long answers take, in memory
"""
