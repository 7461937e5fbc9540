"""A workbook may wait for a plant that isn't begun; what is typed may clear cells."""

import django.db.models.deletion
from django.db import migrations, models


class Migration(migrations.Migration):
    dependencies = [("enter", "0002_initial")]

    operations = [
        migrations.AddField(
            model_name="drop",
            name="cleared",
            field=models.JSONField(blank=True, default=list),
        ),
        migrations.AlterField(
            model_name="drop",
            name="plant",
            field=models.ForeignKey(
                blank=True,
                null=True,
                on_delete=django.db.models.deletion.CASCADE,
                to="plants.plant",
            ),
        ),
    ]
