"""Pages for people. Their templates and their style sheet are in the folder templates/.

project_pages    the project's page and the status page
account_pages    an account, for its owner
volunteer_pages  users and computers, for everybody
team_pages       teams, for everybody
news             the operator's news
feeds            the same as feeds, also for BOINC's client
statements       the status of hosts and users, by bsched's statements
page_numbers     long lists on several pages
badges           badges of users, by credit and by years
charts           charts of credit by days
pictures         the project's picture, and plots of the last month
templates        Jinja2's templates with one style sheet
"""
